Creator "ogdf::GraphIO::writeGML"
graph [
  directed 1
  node [
    id 0
    label "s"
    graphics [
      x 10
      y 10
      w 20
      h 20
      type "rectangle"
      fill "#FFFFFF"
    ]
  ]
  node [
    id 1
    label "t"
    graphics [
      x 190.25
      y 10
      w 20
      h 20
      type "rectangle"
      fill "#FFFFFF"
    ]
  ]
  node [
    id 2
    label "v"
    graphics [
      x 190.25
      y 130
      w 20
      h 20
      type "rectangle"
      fill "#FFFFFF"
    ]
  ]
  edge [
    source 0
    target 1
    generalization 0
    graphics [
      type "line"
      arrow "last"
      stipple 1
      lineWidth 1
    ]
  ]
  edge [
    source 0
    target 2
    generalization 0
    graphics [
      type "line"
      arrow "last"
      stipple 1
      lineWidth 1
      Line [
        point [ x 10 y 10 ]
        point [ x 10 y 130 ]
        point [ x 190.25 y 130 ]
      ]
    ]
  ]
]
