Creator "hand"
# A voltage divider: source, two resistors, ground, and a tap between the resistors.
graph [
  label "divider"
  directed 0
  node [ id 1 label "V+" graphics [ x 40.0 y 300.0 w 24.0 h 24.0 type "ellipse" ] ]
  node [ id 2 label "R1 10k" graphics [ x 40.0 y 220.0 w 16.0 h 48.0 type "rectangle" ] ]
  node [ id 3 label "tap" graphics [ x 40.0 y 150.0 w 6.0 h 6.0 type "ellipse" ] ]
  node [ id 4 label "R2 4k7" graphics [ x 40.0 y 80.0 w 16.0 h 48.0 type "rectangle" ] ]
  node [ id 5 label "GND" graphics [ x 40.0 y 10.0 w 24.0 h 8.0 type "rectangle" ] ]
  node [ id 6 label "out" graphics [ x 160.0 y 150.0 w 24.0 h 24.0 type "ellipse" ] ]
  edge [ source 1 target 2 ]
  edge [ source 2 target 3 ]
  edge [ source 3 target 4 ]
  edge [ source 4 target 5 ]
  edge [ source 3 target 6 ]
]
