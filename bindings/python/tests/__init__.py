"""Tests of the package `pallihun`: `python3 -m unittest` in the folder above runs them."""
