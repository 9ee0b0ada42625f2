{-# LANGUAGE BangPatterns #-}
-- What the Haskell programs share: options, the generator, counters, threads and their time.
module Common where

import Control.Concurrent
import Control.Concurrent.STM (STM)
import Control.Exception (evaluate)
import Control.Monad
import Data.Bits
import qualified Data.Map.Strict as M
import Data.Word
import Foreign.Marshal.Alloc (mallocBytes)
import Foreign.Ptr
import Foreign.Storable
import GHC.Clock (getMonotonicTimeNSec)
import GHC.Conc (unsafeIOToSTM)
import System.Directory (listDirectory)
import System.Environment
import System.Exit
import System.IO
import Text.Read (readMaybe)

refuse :: String -> IO a
refuse s = hPutStrLn stderr s >> exitWith (ExitFailure 1)

type Options = String -> Int

-- Options as numbers; --audit has no value.
options :: [(String, Int)] -> IO Options
options known = do
  ws <- getArgs
  let go m [] = pure m
      go m ("--audit" : r) | "audit" `elem` map fst known = go (M.insert "audit" 1 m) r
      go m (('-' : '-' : k) : v : r)
        | k `elem` map fst known, Just n <- readMaybe v, n >= 0 = go (M.insert k n m) r
      go _ (w : _) = refuse ("refused: " ++ w)
  m <- go (M.fromList known) ws
  pure (m M.!)

-- PCG32 (XSH RR 64/32).
data Generator = Generator !Word64 !Word64

generator :: Int -> Int -> Generator
generator seed stream = step (Generator (fromIntegral seed + inc) inc)
  where
    inc = (fromIntegral stream `shiftL` 1) .|. 1

step :: Generator -> Generator
step (Generator s i) = Generator (s * 6364136223846793005 + i) i
{-# INLINE step #-}

below :: Int -> Generator -> (Int, Generator)
below n g@(Generator s _) =
  let !turn = fromIntegral (s `shiftR` 59) :: Int
      !x = fromIntegral (((s `shiftR` 18) `xor` s) `shiftR` 27) :: Word32
      !y = x `rotateR` turn
      !r = fromIntegral ((fromIntegral y * fromIntegral n :: Word64) `shiftR` 32)
      !g' = step g
   in (r, g')
{-# INLINE below #-}

-- What of n the thread w of so many makes.
shareOf :: Int -> Int -> Int -> Int
shareOf n clients w = n `div` clients + (if w < n `mod` clients then 1 else 0)

-- A running hash (FNV).
empty :: Int
empty = fromIntegral (0xcbf29ce484222325 :: Word64)

mix :: Int -> Int -> Int
mix h x = (h `xor` x) * 0x100000001b3
{-# INLINE mix #-}

-- How many attempts each thread has begun, each on a cache line of its own.
newtype Counters = Counters (Ptr Int)

counters :: Int -> IO Counters
counters n = do
  p <- mallocBytes (128 * n)
  forM_ [0 .. n - 1] $ \w -> poke (p `plusPtr` (128 * w)) (0 :: Int)
  pure (Counters p)

counter :: Counters -> Int -> Ptr Int
counter (Counters p) w = p `plusPtr` (128 * w)

begun :: Counters -> Int -> IO Int
begun c n = sum <$> mapM (peek . counter c) [0 .. n - 1]

-- Counts also what is rolled back.
started :: Ptr Int -> STM ()
started p = unsafeIOToSTM (peek p >>= \x -> poke p (x + 1))
{-# INLINE started #-}

-- Seconds that the threads of the process together were ready to run and had no core.
runDelay :: IO Double
runDelay = do
  tasks <- listDirectory "/proc/self/task"
  xs <- forM tasks $ \t -> do
    s <- readFile ("/proc/self/task/" ++ t ++ "/schedstat")
    evaluate (read (words s !! 1) :: Double)
  pure (sum xs / 1e9)

data Took = Took {wall :: !Double, delay :: !Double}

-- Runs f in as many threads, each on a capability of its own. The wall seconds are from the first start to the last end, the delay what
-- the threads were kept waiting for a core.
inThreads :: Int -> (Int -> IO a) -> IO (Took, [a])
inThreads n f = do
  ready <- newEmptyMVar
  go <- newEmptyMVar
  outs <- forM [0 .. n - 1] $ \w -> do
    out <- newEmptyMVar
    _ <- forkOn w $ do
      putMVar ready ()
      readMVar go
      a <- getMonotonicTimeNSec
      r <- f w >>= evaluate
      b <- getMonotonicTimeNSec
      putMVar out (a, b, r)
    pure out
  replicateM_ n (takeMVar ready)
  before <- runDelay
  putMVar go ()
  rs <- mapM takeMVar outs
  after <- runDelay
  let first = minimum [a | (a, _, _) <- rs]
      end = maximum [b | (_, b, _) <- rs]
      took = Took (fromIntegral (end - first) / 1e9) (max 0 (after - before))
  pure (took, [r | (_, _, r) <- rs])
