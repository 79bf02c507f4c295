"""Makes 1,024 images of 64 mirrors, as another gmbench would have left them, and prints lines that adopt them.

    many_images.py IMAGES FORMATS
"""

import os
import sys

images = sys.argv[1]
sys.path.insert(0, sys.argv[2])
import formats

for mirror in range(64):
    names = [f"m{mirror:02d}-c{component:02d}" for component in range(16)]
    for component, name in enumerate(names):
        sector = formats.encode({
            "magic": formats.MAGIC, "version": 4, "name": formats.padded(b"gm%02d" % mirror), "mid": mirror,
            "did": component, "all": 16, "genid": 0, "syncid": 1, "priority": 0, "slice": 4096, "balance": 2,
            "mediasize": 1536, "sectorsize": 512, "sync_offset": 0, "mflags": 0, "dflags": 0, "provider": bytes(16),
            "provsize": 2048,
        })
        with open(os.path.join(images, name), "wb") as file:
            file.write(bytes([mirror]) * 1536 + sector)
    print(f"k{mirror} adopt gm{mirror:02d} {' '.join(names)}")
