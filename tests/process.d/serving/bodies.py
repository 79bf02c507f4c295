"""The label of a mirror gm0 on a.img as a body, and what the looks show after it."""

LABEL = '{"key":"k1","words":["label","--mid","7","--did","1","gm0","a.img"]}'
EMPTY = '{"mirrors":[]}'
STATUS = '{"mirrors":[{"components":[{"name":"a.img","state":"ACTIVE"}],"name":"gm0","state":"COMPLETE"}]}'
MIRROR = (
    '{"all":1,"balance":"load","components":[{"did":1,"flags":0,"hardcoded":false,"name":"a.img",'
    '"offset":0,"priority":0,"provsize":2048,"state":"ACTIVE","syncid":1}],"flags":0,"genid":0,'
    '"mediasize":1536,"mid":7,"name":"gm0","slice":4096,"state":"COMPLETE","syncid":1}'
)
SECTOR = (
    '{"all":1,"balance":"load","dflags":0,"did":1,"genid":0,"mediasize":1536,"mflags":0,"mid":7,'
    '"name":"gm0","priority":0,"provider":"","provsize":2048,"slice":4096,"sync_offset":0,"syncid":1}'
)
