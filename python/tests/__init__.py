"""The tests of the packages. In the folder above: python3 -m unittest"""
