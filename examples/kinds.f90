! Each kind wraps to its own range, and of two kinds in one operation the wider one wins.
program kinds
  integer(1) :: small(4), step = 50
  integer(8) :: large(4)
  integer :: i
  do concurrent (i = 1:4)
    small(i) = step*int(i, 1)
    large(i) = 1000000000_8*i*i
  end do
  print *, 'kind 1:', small
  print *, 'kind 8:', large
  print *, 'together:', large(2) + small(2), kind(large(2) + small(2))
end program kinds
