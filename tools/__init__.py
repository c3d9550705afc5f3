"""Tools; the modules of this folder name each other from the top of the tree too."""
