"""Makes of CWL documents, in YAML or JSON and of v1.0 to v1.2, the JSON that `deparohi run` takes."""
