Creator "hand"
# The classes of a drawing editor, as a layout tool routed them: with bends, and more room than they need.
graph [
  label "drawing editor"
  directed 1
  node [ id 1 label "Application" graphics [ x 72 y 912 w 64 h 26 type "rectangle" ] ]
  node [ id 2 label "Window" graphics [ x 360 y 936 w 64 h 26 type "rectangle" ] ]
  node [ id 3 label "Menu" graphics [ x 552 y 960 w 64 h 26 type "rectangle" ] ]
  node [ id 4 label "Command" graphics [ x 792 y 960 w 64 h 26 type "rectangle" ] ]
  node [ id 5 label "History" graphics [ x 1032 y 984 w 64 h 26 type "rectangle" ] ]
  node [ id 6 label "Clipboard" graphics [ x 1272 y 912 w 64 h 26 type "rectangle" ] ]
  node [ id 7 label "Settings" graphics [ x 1512 y 960 w 64 h 26 type "rectangle" ] ]
  node [ id 8 label "Document" graphics [ x 72 y 768 w 64 h 26 type "rectangle" ] ]
  node [ id 9 label "View" graphics [ x 312 y 792 w 64 h 26 type "rectangle" ] ]
  node [ id 10 label "Toolbar" graphics [ x 600 y 768 w 64 h 26 type "rectangle" ] ]
  node [ id 11 label "Tool" graphics [ x 792 y 816 w 64 h 26 type "rectangle" ] ]
  node [ id 12 label "SelectTool" graphics [ x 1032 y 792 w 64 h 26 type "rectangle" ] ]
  node [ id 13 label "DrawTool" graphics [ x 1344 y 792 w 64 h 26 type "rectangle" ] ]
  node [ id 14 label "Theme" graphics [ x 1512 y 744 w 64 h 26 type "rectangle" ] ]
  node [ id 15 label "Page" graphics [ x 72 y 624 w 64 h 26 type "rectangle" ] ]
  node [ id 16 label "Layer" graphics [ x 360 y 600 w 64 h 26 type "rectangle" ] ]
  node [ id 17 label "Selection" graphics [ x 552 y 624 w 64 h 26 type "rectangle" ] ]
  node [ id 18 label "Handle" graphics [ x 792 y 624 w 64 h 26 type "rectangle" ] ]
  node [ id 19 label "Guide" graphics [ x 1032 y 624 w 64 h 26 type "rectangle" ] ]
  node [ id 20 label "Ruler" graphics [ x 1272 y 624 w 64 h 26 type "rectangle" ] ]
  node [ id 21 label "Palette" graphics [ x 1512 y 624 w 64 h 26 type "rectangle" ] ]
  node [ id 22 label "Figure" graphics [ x 72 y 456 w 64 h 26 type "rectangle" ] ]
  node [ id 23 label "Group" graphics [ x 312 y 456 w 64 h 26 type "rectangle" ] ]
  node [ id 24 label "Shape" graphics [ x 648 y 456 w 64 h 26 type "rectangle" ] ]
  node [ id 25 label "Text" graphics [ x 840 y 432 w 64 h 26 type "rectangle" ] ]
  node [ id 26 label "Image" graphics [ x 1032 y 456 w 64 h 26 type "rectangle" ] ]
  node [ id 27 label "Connector" graphics [ x 1272 y 456 w 64 h 26 type "rectangle" ] ]
  node [ id 28 label "Colour" graphics [ x 1512 y 456 w 64 h 26 type "rectangle" ] ]
  node [ id 29 label "Rectangle" graphics [ x 72 y 288 w 64 h 26 type "rectangle" ] ]
  node [ id 30 label "Ellipse" graphics [ x 312 y 288 w 64 h 26 type "rectangle" ] ]
  node [ id 31 label "Polygon" graphics [ x 648 y 288 w 64 h 26 type "rectangle" ] ]
  node [ id 32 label "Font" graphics [ x 792 y 288 w 64 h 26 type "rectangle" ] ]
  node [ id 33 label "Filter" graphics [ x 1032 y 288 w 64 h 26 type "rectangle" ] ]
  node [ id 34 label "Route" graphics [ x 1344 y 288 w 64 h 26 type "rectangle" ] ]
  node [ id 35 label "Gradient" graphics [ x 1512 y 288 w 64 h 26 type "rectangle" ] ]
  node [ id 36 label "Reader" graphics [ x 72 y 120 w 64 h 26 type "rectangle" ] ]
  node [ id 37 label "Writer" graphics [ x 312 y 120 w 64 h 26 type "rectangle" ] ]
  node [ id 38 label "Format" graphics [ x 552 y 120 w 64 h 26 type "rectangle" ] ]
  node [ id 39 label "Glyph" graphics [ x 792 y 120 w 64 h 26 type "rectangle" ] ]
  node [ id 40 label "Bitmap" graphics [ x 1032 y 120 w 64 h 26 type "rectangle" ] ]
  node [ id 41 label "Port" graphics [ x 1344 y 120 w 64 h 26 type "rectangle" ] ]
  node [ id 42 label "Printer" graphics [ x 1512 y 120 w 64 h 26 type "rectangle" ] ]
  edge [ source 2 target 1 label "owns"
    graphics [ Line [ point [ x 360 y 936 ] point [ x 288 y 936 ] point [ x 288 y 912 ] point [ x 72 y 912 ] ] ] ]
  edge [ source 8 target 1 label "owns" ]
  edge [ source 9 target 2 label "shows"
    graphics [ Line [ point [ x 312 y 792 ] point [ x 312 y 888 ] point [ x 360 y 888 ] point [ x 360 y 936 ] ] ] ]
  edge [ source 3 target 2 label "has"
    graphics [ Line [ point [ x 552 y 960 ] point [ x 480 y 960 ] point [ x 480 y 936 ] point [ x 360 y 936 ] ] ] ]
  edge [ source 4 target 3 label "calls" ]
  edge [ source 5 target 4 label "keeps"
    graphics [ Line [ point [ x 1032 y 984 ] point [ x 960 y 984 ] point [ x 960 y 960 ] point [ x 792 y 960 ] ] ] ]
  edge [ source 6 target 5 label "uses"
    graphics [ Line [ point [ x 1272 y 912 ] point [ x 1032 y 912 ] point [ x 1032 y 984 ] ] ] ]
  edge [ source 7 target 6 label "reads"
    graphics [ Line [ point [ x 1512 y 960 ] point [ x 1272 y 960 ] point [ x 1272 y 912 ] ] ] ]
  edge [ source 14 target 7 label "part" ]
  edge [ source 10 target 9 label "has"
    graphics [ Line [ point [ x 600 y 768 ] point [ x 528 y 768 ] point [ x 528 y 792 ] point [ x 312 y 792 ] ] ] ]
  edge [ source 11 target 10 label "lists"
    graphics [ Line [ point [ x 792 y 816 ] point [ x 792 y 768 ] point [ x 600 y 768 ] ] ] ]
  edge [ source 11 target 4 label "makes"
    graphics [ Line [ point [ x 792 y 816 ] point [ x 720 y 816 ] point [ x 720 y 912 ] point [ x 792 y 912 ] point [ x 792 y 960 ] ] ] ]
  edge [ source 12 target 11 label "is"
    graphics [ Line [ point [ x 1032 y 792 ] point [ x 960 y 792 ] point [ x 960 y 816 ] point [ x 792 y 816 ] ] ] ]
  edge [ source 13 target 11 label "is"
    graphics [ Line [ point [ x 1344 y 792 ] point [ x 1344 y 864 ] point [ x 792 y 864 ] point [ x 792 y 816 ] ] ] ]
  edge [ source 13 target 12 label "shares" ]
  edge [ source 15 target 8 label "has" ]
  edge [ source 16 target 15 label "has"
    graphics [ Line [ point [ x 360 y 600 ] point [ x 288 y 600 ] point [ x 288 y 624 ] point [ x 72 y 624 ] ] ] ]
  edge [ source 17 target 9 label "shows"
    graphics [ Line [ point [ x 552 y 624 ] point [ x 552 y 720 ] point [ x 312 y 720 ] point [ x 312 y 792 ] ] ] ]
  edge [ source 18 target 17 label "has" ]
  edge [ source 12 target 18 label "drags"
    graphics [ Line [ point [ x 1032 y 792 ] point [ x 1032 y 696 ] point [ x 792 y 696 ] point [ x 792 y 624 ] ] ] ]
  edge [ source 19 target 13 label "snaps"
    graphics [ Line [ point [ x 1032 y 624 ] point [ x 1032 y 672 ] point [ x 1344 y 672 ] point [ x 1344 y 792 ] ] ] ]
  edge [ source 20 target 19 label "makes" ]
  edge [ source 21 target 14 label "part" ]
  edge [ source 20 target 21 label "draws" ]
  edge [ source 22 target 16 label "has"
    graphics [ Line [ point [ x 72 y 456 ] point [ x 72 y 552 ] point [ x 360 y 552 ] point [ x 360 y 600 ] ] ] ]
  edge [ source 23 target 22 label "is" ]
  edge [ source 25 target 24 label "is"
    graphics [ Line [ point [ x 840 y 432 ] point [ x 768 y 432 ] point [ x 768 y 456 ] point [ x 648 y 456 ] ] ] ]
  edge [ source 17 target 24 label "holds"
    graphics [ Line [ point [ x 552 y 624 ] point [ x 552 y 456 ] point [ x 648 y 456 ] ] ] ]
  edge [ source 25 target 18 label "edits"
    graphics [ Line [ point [ x 840 y 432 ] point [ x 840 y 576 ] point [ x 792 y 576 ] point [ x 792 y 624 ] ] ] ]
  edge [ source 26 target 25 label "beside"
    graphics [ Line [ point [ x 1032 y 456 ] point [ x 960 y 456 ] point [ x 960 y 432 ] point [ x 840 y 432 ] ] ] ]
  edge [ source 26 target 19 label "snaps" ]
  edge [ source 27 target 26 label "joins" ]
  edge [ source 28 target 21 label "has" ]
  edge [ source 35 target 28 label "is" ]
  edge [ source 29 target 22 label "is" ]
  edge [ source 30 target 23 label "is" ]
  edge [ source 31 target 24 label "is" ]
  edge [ source 31 target 30 label "is" ]
  edge [ source 32 target 25 label "has"
    graphics [ Line [ point [ x 792 y 288 ] point [ x 792 y 384 ] point [ x 840 y 384 ] point [ x 840 y 432 ] ] ] ]
  edge [ source 39 target 32 label "has" ]
  edge [ source 33 target 26 label "has" ]
  edge [ source 34 target 27 label "has"
    graphics [ Line [ point [ x 1344 y 288 ] point [ x 1344 y 456 ] point [ x 1272 y 456 ] ] ] ]
  edge [ source 41 target 34 label "ends" ]
  edge [ source 36 target 29 label "reads" ]
  edge [ source 37 target 36 label "pairs" ]
  edge [ source 38 target 37 label "knows" ]
  edge [ source 38 target 31 label "saves"
    graphics [ Line [ point [ x 552 y 120 ] point [ x 648 y 120 ] point [ x 648 y 288 ] ] ] ]
  edge [ source 40 target 33 label "makes" ]
  edge [ source 40 target 39 label "draws" ]
  edge [ source 41 target 27 label "joins"
    graphics [ Line [ point [ x 1344 y 120 ] point [ x 1272 y 120 ] point [ x 1272 y 456 ] ] ] ]
  edge [ source 42 target 35 label "prints" ]
  edge [ source 42 target 40 label "prints"
    graphics [ Line [ point [ x 1512 y 120 ] point [ x 1512 y 72 ] point [ x 1032 y 72 ] point [ x 1032 y 120 ] ] ] ]
]
