// block 0 line 2 %A: staged 32 bytes at depth 0, in
// block 0 line 2 %B: staged 32 bytes at depth 0, in out
module {
  func.func @inc(%A: memref<8xi32>, %B: memref<8xi32>) {
    %copy0 = memref.alloc() : memref<1x8xi32, 1>
    affine.for %copy1 = 0 to 8 {
      %copy2 = affine.load %A[%copy1] : memref<8xi32>
      affine.store %copy2, %copy0[0, %copy1] : memref<1x8xi32, 1>
    }
    %copy3 = memref.alloc() : memref<1x8xi32, 1>
    affine.for %copy4 = 0 to 8 {
      %copy5 = affine.load %B[%copy4] : memref<8xi32>
      affine.store %copy5, %copy3[0, %copy4] : memref<1x8xi32, 1>
    }
    affine.for %i = 0 to 8 {
      %0 = affine.load %copy0[0, %i] : memref<1x8xi32, 1>
      %c = arith.constant 1 : i32
      %1 = arith.addi %0, %c : i32
      affine.store %1, %copy3[0, %i] : memref<1x8xi32, 1>
    }
    affine.for %copy6 = 0 to 8 {
      %copy7 = affine.load %copy3[0, %copy6] : memref<1x8xi32, 1>
      affine.store %copy7, %B[%copy6] : memref<8xi32>
    }
    memref.dealloc %copy3 : memref<1x8xi32, 1>
    memref.dealloc %copy0 : memref<1x8xi32, 1>
    return
  }
}
