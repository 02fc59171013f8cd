"""One script, patch file or change over folders of drawings, with a journal by which a run that was stopped goes on."""
