{-# LANGUAGE BangPatterns #-}
-- Transactions on words in GHC's STM: a TVar for each word.
module Main (main) where

import Common
import Control.Concurrent
import Control.Concurrent.STM
import Control.Monad
import Data.Array (Array, elems, listArray)
import Data.Array.Base (unsafeAt, unsafeRead, unsafeWrite)
import Data.Array.IO (IOUArray, newArray)
import Foreign.Ptr
import GHC.Conc (unsafeIOToSTM)
import System.Exit
import System.Mem (performGC)
import Text.Printf

-- Answers the sum of all that was read.
work :: Options -> Array Int (TVar Int) -> Ptr Int -> Int -> IO Int
work o vars p w = do
  let size = o "words"
      count = o "reads"
      writes = o "writes"
      n = shareOf (o "transactions") (o "threads") w
  places <- newArray (0, count) 0 :: IO (IOUArray Int Int)
  let fill :: Int -> Generator -> IO Generator
      fill !j !g
        | j == count = pure g
        | otherwise = do
            let (!x, !g') = below size g
            unsafeWrite places j x
            fill (j + 1) g'
      once !j !s
        | j == count = pure s
        | otherwise = do
            i <- unsafeIOToSTM (unsafeRead places j)
            let v = vars `unsafeAt` i
            x <- readTVar v
            when (j < writes) $ writeTVar v $! x + 1
            once (j + 1) (s + x)
      go !i !g !acc
        | i == n = pure acc
        | otherwise = do
            g' <- fill 0 g
            s <- atomically (started p >> once 0 0)
            go (i + 1) g' (acc + s)
  go (0 :: Int) (generator (o "seed") (w + 1)) (0 :: Int)

main :: IO ()
main = do
  o <- options [("threads", 2), ("words", 65536), ("reads", 10), ("writes", 2), ("transactions", 1000000), ("seed", 1)]
  let (threads, n, writes) = (o "threads", o "transactions", o "writes")
  when (threads < 1 || threads > 64 || o "words" < 1 || o "reads" < 1 || writes > o "reads" || n < 1) $
    refuse "an option is outside its range (writes is at most reads)"
  setNumCapabilities threads
  vars <- listArray (0, o "words" - 1) <$> replicateM (o "words") (newTVarIO 0)
  c <- counters threads
  vars `seq` performGC
  (took, seen) <- inThreads threads $ \w -> work o vars (counter c w) w
  tries <- begun c threads
  total <- sum <$> mapM readTVarIO (elems vars)
  let right = total == n * writes
      seconds = wall took
  printf
    "peer=ghc-stm threads=%d words=%d reads=%d writes=%d transactions=%d wall=%.6f rate=%.0f waited=%.2f aborts=%d sum=%s seen=%d\n"
    threads
    (o "words")
    (o "reads")
    writes
    n
    seconds
    (fromIntegral n / seconds)
    (delay took / (seconds * fromIntegral threads))
    (tries - n)
    (if right then "ok" else "WRONG")
    (sum seen)
  unless right $ exitWith (ExitFailure 3)
