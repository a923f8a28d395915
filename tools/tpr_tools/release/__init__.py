"""Makes the files of a release: an archive, and a Debian package."""
