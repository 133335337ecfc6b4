"""Takes C as people write it and writes RC. The script tools/from-c is the way in."""
