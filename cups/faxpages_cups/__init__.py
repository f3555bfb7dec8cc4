"""The filter faxtopdf and the backend faxpages of CUPS, which import this. It goes with the module faxpages of the same
version."""
