Creator "hand"
# Three stations on one line, drawn far apart.
graph [
  node [ id 0 graphics [ x 0 y 40 ] ]
  node [ id 1 graphics [ x 125 y 40 ] ]
  node [ id 2 graphics [ x 300 y 40 ] ]
  edge [ source 0 target 1 ]
  edge [ source 1 target 2 ]
]
