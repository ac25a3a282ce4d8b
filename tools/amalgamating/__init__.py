"""The parts of tools/amalgamation: C sources in one file, the files of an amalgamation, and objects compared."""
