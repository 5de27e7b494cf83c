"""Releases, as `tools/release` writes them: what is linked of the archive (linking.py), which files a release has (contents.py), what it
says of itself (manifest.py), and how they become one file (packing.py). files/ has what stands in a release and not in the repository. """
