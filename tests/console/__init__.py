"""The console's trials. Lines and events are written from docs/FORMATS.md, docs/OPERATING.md and
the events of ChirpStack, and pages are read as a browser or a person reads them."""
