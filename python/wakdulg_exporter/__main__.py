"""Calls the program: python3 -m wakdulg_exporter"""
from wakdulg_exporter import main

main()
