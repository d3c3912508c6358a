"""The checks, which tools/check.py runs by the function `main` of their modules, and the modules that they alone share."""
