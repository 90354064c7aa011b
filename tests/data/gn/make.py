"""make.py PROGRAM FILE writes what the program prints into the file."""
import subprocess
import sys

with open(sys.argv[2], "wb") as file:
    subprocess.run(["./" + sys.argv[1]], stdout=file, check=True)
