"""What checks/docs stands on: pages made of sources, and what is looked up in pages."""
