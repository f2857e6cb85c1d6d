#!/usr/bin/env python3
"""Puts a member into an .spv file, so that another reader can show it: as_spv.py MEMBER OUT.spv"""

import sys
import zipfile

DETAIL = "0000000001_lightTableData.bin"
VIEWER = "http://xml.spss.com/spss/viewer/viewer"
STRUCTURE = (
    '<?xml version="1.0" encoding="UTF-8"?>'
    f'<heading xmlns="{VIEWER}-tree" xmlns:vtb="{VIEWER}-table"><label>Output</label>'
    '<heading commandName="Table"><label>Table</label><container visibility="visible"><label>Table</label>'
    '<vtb:table commandName="Table" type="table" tableId="1" subType="Table">'
    f"<vtb:tableStructure><vtb:dataPath>{DETAIL}</vtb:dataPath></vtb:tableStructure></vtb:table>"
    "</container></heading></heading>"
)

if len(sys.argv) != 3:
    sys.exit(__doc__)
with open(sys.argv[1], "rb") as file:
    member = file.read()
with zipfile.ZipFile(sys.argv[2], "w", zipfile.ZIP_DEFLATED) as spv:
    spv.writestr("META-INF/MANIFEST.MF", "allowPivoting=true")
    spv.writestr("outputViewer0000000000_heading.xml", STRUCTURE)
    spv.writestr(DETAIL, member)
