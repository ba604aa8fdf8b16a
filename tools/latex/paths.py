"""Lets the modules of tools/page be imported: the language and its figures are told there."""
# SPDX-License-Identifier: Apache-2.0
import sys
from pathlib import Path

sys.path.append(str(Path(__file__).resolve().parent.parent / "page"))
