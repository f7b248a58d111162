

   
  void  rv_putbyte  (  int  c  )  ;  

  int  main
(
void
)
{
  rv_putbyte
(
65
+
1
)
;
  return   5  -  2  ;  
  }  
  

