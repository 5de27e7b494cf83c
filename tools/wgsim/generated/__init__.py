"""What writes the pages, the parts of pages and the files for callers that say what stands elsewhere: `tools/python -m wgsim.generated`."""
