"""The parts of rackscript: records, text, answers and the two reports."""
