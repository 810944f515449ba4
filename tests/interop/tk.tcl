# Opens a DTED cell as a Tk picture and prints what tkimg says of it: wish tk.tcl FILE
wm withdraw .
puts "Version: [package require img::dted]"
set picture [image create photo -file [lindex $argv 0] -format {dted -verbose 1}]
puts "Image: [image width $picture] [image height $picture]"
exit
