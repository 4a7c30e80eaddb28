"""Where things are; a module of this folder that needs one of vectors/ brings this one in first."""
import os
import sys

HERE = os.path.dirname(os.path.abspath(__file__))
ROOT = os.path.dirname(HERE)
HEADERS = os.path.join(ROOT, "include")
LIBRARY = os.path.join(ROOT, "target", "staticlib", "libpanel_c.a")
BUILT = os.path.join(ROOT, "target", "bench")
ORACLE = os.path.join(ROOT, "target", "oracle", "release", "oracle")

# behind this folder, so that no module there hides one of ours
sys.path.append(os.path.join(ROOT, "vectors"))
