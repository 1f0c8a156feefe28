graph [
  version 2
  directed 0
  bb "0,0,204,126"
  splines "line"
  node [
    id 0
    name "a"
    label "a"
    graphics [
      x 27
      y 108
      w 54
      H 36
      type "box"
    ]
    LabelGraphics [
      text "a"
    ]
  ]
  node [
    id 1
    name "b"
    label "b"
    graphics [
      x 177
      y 108
      w 54
      H 36
      type "box"
    ]
    LabelGraphics [
      text "b"
    ]
  ]
  node [
    id 2
    name "c"
    label "c"
    graphics [
      x 177
      y 18
      w 54
      H 36
      type "box"
    ]
    LabelGraphics [
      text "c"
    ]
  ]
  edge [
    id 1
    source 0
    target 1
  ]
  edge [
    id 2
    source 1
    target 2
  ]
]
