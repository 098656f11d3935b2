"""Recorded sessions of a guest, as bytes and as text; tools/recordings.py is their command line."""
