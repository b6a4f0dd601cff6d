"""What `moos look` is made of: one reader of reports, and a module for each question that is asked of a run.

None of it is part of what is proved. It reads a report after the run, as any reader of docs/FORMATS.md can, and a fault here changes
no report. A number that is read off the report is printed as the report has it; a number that is computed here is said to be so."""
