% Three tasks, two machines, and how long each task takes on each: Listing 39, the instance of Figure 5.
         machine(1).       machine(2).
task(a). duration(a,1,3). duration(a,2,4).
task(b). duration(b,1,1). duration(b,2,6).
task(c). duration(c,1,5). duration(c,2,5).
