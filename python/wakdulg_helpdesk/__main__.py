"""Calls the program: python3 -m wakdulg_helpdesk"""
from wakdulg_helpdesk.program import main

main()
