"""Makes a site from the sources, and the generated parts of committed pages and files."""
