"""The server behind the page of clients/web, in which polygons are asked about with the mouse."""
