"""What can be wrong with the words of a command line, with what is packed, and with the output."""


class Usage(ValueError):
    """The words of the command line can't be followed."""


class NotUnpacked(ValueError):
    """A gzip or zip file of which nothing can be read, or not all. It says why."""


class NoFitFile(NotUnpacked):
    """A zip file without any FIT file."""


class NotWritten(Exception):
    """The output failed, and not what is read."""
