"""The mirror of a folder that the package had before the library kept folders: a reference for what is told rightly, and
for what was told wrongly. It makes each change by a call of its own."""
