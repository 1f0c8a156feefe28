Creator "hand"
# Two arms of a spine: the short one would run into the hook at the end of the other. The search has to
# choose which of the two gives way.
graph [
  node [ id 0 label "P" graphics [ x 0 y 0 ] ]
  node [ id 1 label "Q" graphics [ x 0 y 10 ] ]
  node [ id 2 label "A" graphics [ x 20 y 0 ] ]
  node [ id 3 label "A'" graphics [ x 20 y 5 ] ]
  node [ id 4 label "B" graphics [ x 10 y 10 ] ]
  edge [ source 0 target 1 ]
  edge [ source 0 target 2 ]
  edge [ source 2 target 3 ]
  edge [ source 1 target 4 ]
]
