"""Tests of the scripts of tools/, which need no program that is built."""
