func.func @inc(%A: memref<8xi32>, %B: memref<8xi32>) {
  affine.for %i = 0 to 8 {
    %0 = affine.load %A[%i] : memref<8xi32>
    %c = arith.constant 1 : i32
    %1 = arith.addi %0, %c : i32
    affine.store %1, %B[%i] : memref<8xi32>
  }
  return
}
