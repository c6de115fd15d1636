"""What the scripts share. The Python module `tilgwaren` is found in this repository."""
import os
import sys

sys.path.append(os.path.join(os.path.dirname(os.path.abspath(__file__)), "../../../bindings/python"))
