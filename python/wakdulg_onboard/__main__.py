"""Calls the program: python3 -m wakdulg_onboard"""
import sys

from wakdulg_onboard.program import main

sys.exit(main())
