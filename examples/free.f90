! The free source form: comments, letters of either case, `;`, and continued lines.
PROGRAM C; Integer :: a(4), &
  b(4), k, i      ! four names
  A = 1

  do concurrent(I=2:4); k = i*i; b(i) = a(i-1) &
    & + k; enddo
  b(1) = b(2) - b(4)*2; Print*, B
EndProgram C
