// 16 notes for 10 seconds at tempo 60.
0 saw 10 440
0 saw 10 440
0 saw 10 440
0 saw 10 440
0 saw 10 440
0 saw 10 440
0 saw 10 440
0 saw 10 440
0 saw 10 440
0 saw 10 440
0 saw 10 440
0 saw 10 440
0 saw 10 440
0 saw 10 440
0 saw 10 440
0 saw 10 440
10 end
