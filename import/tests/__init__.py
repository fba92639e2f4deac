"""Tests of the importer. They need no network. Run: python3 -m unittest discover -s import/tests -t import"""
