graph [
directed 1
version 2
node [
id 0
label "gate"
graphics [
type "rectangle"
width 1.0
x 0.0
y 0.0
z 0.0
w 4.0
h 2.0
d 1.0
fill "#ff5f5f"
]
]
node [
id 1
label "hall"
graphics [
type "rectangle"
width 1.0
x 12.0
y 0.0
z 0.0
w 4.0
h 2.0
d 1.0
fill "#ff5f5f"
]
]
node [
id 2
label "stair"
graphics [
type "rectangle"
width 1.0
x 12.0
y 7.5
z 0.0
w 4.0
h 2.0
d 1.0
fill "#ff5f5f"
]
]
edge [
source 0
target 1
id 0
label ""
graphics [
type "line"
arrow "last"
width 1.0
]
]
edge [
source 0
target 2
id 1
label ""
graphics [
type "line"
arrow "last"
width 1.0
Line [
point [ z 0.0 x 0.0 y 0.0 ]
point [ z 0.0 x 0.0 y 7.5 ]
point [ z 0.0 x 12.0 y 7.5 ]
]
]
]
]
