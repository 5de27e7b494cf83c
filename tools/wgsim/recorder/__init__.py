"""The recorder of pages: its parts in JavaScript, and the browser that it is run in."""
