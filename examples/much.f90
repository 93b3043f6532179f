! A million numbers of 19 digits are more than a run may write.
program much
  integer(8) :: a(1000000) = huge(1_8)
  print *, 'all of them:'
  print *, a
end program much
