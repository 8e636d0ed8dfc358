"""What makes a release: an archive and a package of Debian that need no toolchain."""
