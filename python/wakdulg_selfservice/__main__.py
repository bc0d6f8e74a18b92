"""Calls the program: python3 -m wakdulg_selfservice"""
from wakdulg_selfservice.program import main

main()
