-- Layout stands for the braces and semicolons.
module Data.Numbers where

{- The first of two numbers. -}
f :: Int -> Int -> Int
f a b = a

x :: Int
x = f 1
      2
