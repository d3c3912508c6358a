"""Likely causes of refused lines, and what to write instead."""
