#!t
a "b\n c" <<here # word
 x "äöü" 😀 y
here
z "
"
