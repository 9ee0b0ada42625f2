{-# LANGUAGE BangPatterns #-}
-- Sessions of reservations in GHC's STM: each is one `atomically`. A table is an array of TVars, each with a persistent IntMap of the keys
-- of its bucket; a customer is a list.
module Main (main) where

import Common
import Control.Concurrent
import Control.Concurrent.STM
import Control.Exception (evaluate)
import Control.Monad
import Control.Monad.ST
import Data.Array (Array, elems, listArray)
import Data.Array.Base (unsafeAt, unsafeFreeze, unsafeWrite)
import Data.Array.ST (STUArray, newArray)
import Data.Array.Unboxed (UArray)
import Data.Bits
import Data.IORef
import qualified Data.IntMap.Strict as IM
import Data.List (foldl', sort)
import qualified Data.Map.Strict as M
import Data.STRef
import qualified Data.Set as S
import Data.Word
import Foreign.Ptr
import System.Exit
import System.Mem (performGC)
import Text.Printf

data Item = Item {total :: !Int, used :: !Int, free :: !Int, price :: !Int}

-- Count, and bookings with the latest first; a booking is id and price * 4 + kind.
data Customer = Customer !Int !Bookings

data Bookings = End | B !Int !Int !Bookings

type Bucket a = TVar (IM.IntMap a)

data Tables = Tables
  { items :: !(Array Int (Bucket Item)) -- kind * buckets + id mod buckets
  , customers :: !(Array Int (Bucket Customer))
  }

buckets, numberLimit, bookingsLimit, changed, flight :: Int
buckets = 4096
numberLimit = 4294967295
bookingsLimit = 1000
changed = 100
flight = 1

itemVar :: Tables -> Int -> Int -> Bucket Item
itemVar t k i = items t `unsafeAt` (k * buckets + (i .&. (buckets - 1)))
{-# INLINE itemVar #-}

customerVar :: Tables -> Int -> Bucket Customer
customerVar t c = customers t `unsafeAt` (c .&. (buckets - 1))
{-# INLINE customerVar #-}

getItem :: Tables -> Int -> Int -> STM (Maybe Item)
getItem t k i = IM.lookup i <$> readTVar (itemVar t k i)
{-# INLINE getItem #-}

putItem :: Tables -> Int -> Int -> Item -> STM ()
putItem t k i it = do
  m <- readTVar (itemVar t k i)
  writeTVar (itemVar t k i) $! IM.insert i it m
{-# INLINE putItem #-}

dropItem :: Tables -> Int -> Int -> STM ()
dropItem t k i = do
  m <- readTVar (itemVar t k i)
  writeTVar (itemVar t k i) $! IM.delete i m

-- How many; three numbers of each (what, customer, first arg); args: id * 65536 + price * 16 + add * 4 + kind.
data Sessions = Sessions !Int !(UArray Int Int) !(UArray Int Int)

numbers :: Int -> ST s (STUArray s Int Int)
numbers n = newArray (0, n) 0

drawArg :: (Int -> ST s Int) -> Int -> Bool -> ST s Int
drawArg draw lastId changes = do
  k <- draw 3
  i <- (+ 1) <$> draw lastId
  add <- if changes then draw 2 else pure 0
  e <- if add == 1 then draw 5 else pure 0
  pure (i `shiftL` 16 .|. (50 + 10 * e) `shiftL` 4 .|. add `shiftL` 2 .|. k)

drawSessions :: Options -> Int -> Int -> Int -> Sessions
drawSessions o seed worker count = runST $ do
  let q = o "queries"
      lastId = max 1 (o "relations" * o "percent-queried" `div` 100)
  heads <- numbers (3 * count)
  args <- numbers (count * q)
  g <- newSTRef (generator seed worker)
  let draw n = do
        (r, g') <- below n <$> readSTRef g
        writeSTRef g $! g'
        pure r
      go !i !a
        | i == count = pure ()
        | otherwise = do
            r <- draw 100
            let what
                  | r < o "percent-user" = 0
                  | odd r = 1
                  | otherwise = 2 :: Int
            c <- if what == 2 then pure 0 else (+ 1) <$> draw lastId
            forM_ (zip [3 * i ..] [what, c, a]) $ uncurry (unsafeWrite heads)
            let end = if what == 1 then a else a + q
            forM_ [a .. end - 1] $ \j -> drawArg draw lastId (what == 2) >>= unsafeWrite args j
            go (i + 1) end
  go 0 0
  Sessions count <$> unsafeFreeze heads <*> unsafeFreeze args

opening :: Options -> Int -> IO Tables
opening o seed = do
  let r = o "relations"
      go _ [] = []
      go g ((k, i) : rest) =
        let (d, g1) = below 5 g
            (e, g2) = below 5 g1
            n = 100 * (1 + d)
         in (k * buckets + (i .&. (buckets - 1)), (i, Item n 0 n (50 + 10 * e))) : go g2 rest
      new = go (generator seed 0) [(k, i) | k <- [0 .. 2], i <- [1 .. r]]
      maps = IM.fromListWith (++) [(b, [e]) | (b, e) <- new]
  its <- forM [0 .. 3 * buckets - 1] $ \b ->
    newTVarIO $! IM.fromList (IM.findWithDefault [] b maps)
  cs <- replicateM buckets (newTVarIO IM.empty)
  pure $! Tables (listArray (0, 3 * buckets - 1) its) (listArray (0, buckets - 1) cs)

act :: Tables -> Int -> Sessions -> Int -> STM Int
act t q (Sessions _ heads args) i = case heads `unsafeAt` (3 * i) of
  0 -> reserve t c args a q
  1 -> delete t c
  _ -> update t args a q
  where
    c = heads `unsafeAt` (3 * i + 1)
    a = heads `unsafeAt` (3 * i + 2)

data Found = None | Found !Int !Item

-- Of each kind the dearest item among those asked for, the first of equals.
reserve :: Tables -> Int -> UArray Int Int -> Int -> Int -> STM Int
reserve t c args a q = go 0 None None None
  where
    better !i it old = case old of
      Found _ other | price other >= price it -> old
      _ -> Found i it
    go !j !x !y !z
      | j == q = book t c x y z
      | otherwise = do
          let w = args `unsafeAt` (a + j)
              k = w .&. 3
              i = w `shiftR` 16
          r <- getItem t k i
          case r of
            Nothing -> go (j + 1) x y z
            Just it -> case k of
              0 -> go (j + 1) (better i it x) y z
              1 -> go (j + 1) x (better i it y) z
              _ -> go (j + 1) x y (better i it z)

book :: Tables -> Int -> Found -> Found -> Found -> STM Int
book _ _ None None None = pure (mix empty 9)
book t c x y z = do
  m <- readTVar (customerVar t c)
  let (n0, l0) = case IM.lookup c m of
        Nothing -> (-1, End)
        Just (Customer n l) -> (n, l)
      one !k found (!h, !n, !l) = case found of
        None -> pure (mix h 0, n, l)
        Found i it
          | holds k i l0 -> pure (mix (mix h 2) i, n, l)
          | free it == 0 -> pure (mix (mix h 3) i, n, l)
          | n >= bookingsLimit -> pure (mix (mix h 4) i, n, l)
          | otherwise -> do
              putItem t k i it {used = used it + 1, free = free it - 1}
              pure (mix (mix (mix h 1) i) (price it), n + 1, B i (price it * 4 + k) l)
  (h, n, l) <- one 0 x (empty, max 0 n0, l0) >>= one 1 y >>= one 2 z
  when (n /= n0) $ writeTVar (customerVar t c) $! IM.insert c (Customer n l) m
  pure h

holds :: Int -> Int -> Bookings -> Bool
holds !k !i = go
  where
    go End = False
    go (B j w r) = (i == j && w .&. 3 == k) || go r

delete :: Tables -> Int -> STM Int
delete t c = do
  m <- readTVar (customerVar t c)
  case IM.lookup c m of
    Nothing -> pure (mix empty 5)
    Just (Customer _ l) -> do
      let go End !s = pure s
          go (B i w r) !s = do
            x <- getItem t (w .&. 3) i
            case x of
              Nothing -> error "a booked item is gone"
              Just it -> putItem t (w .&. 3) i it {used = used it - 1, free = free it + 1}
            go r (s + w `shiftR` 2)
      bill <- go l 0
      writeTVar (customerVar t c) $! IM.delete c m
      pure (mix (mix empty 6) bill)

update :: Tables -> UArray Int Int -> Int -> Int -> STM Int
update t args a q = go 0 empty
  where
    n = changed
    go !j !h
      | j == q = pure h
      | otherwise = do
          let w = args `unsafeAt` (a + j)
              k = w .&. 3
              i = w `shiftR` 16
          r <- getItem t k i
          done <- if testBit w 2 then add k i ((w `shiftR` 4) .&. 0xfff) r else maybe (pure False) (takeUnits k i) r
          go (j + 1) (mix h (if done then 7 else 8))
    add k i p Nothing = True <$ putItem t k i (Item n 0 n p)
    add k i p (Just it)
      | total it + n > numberLimit = pure False
      | otherwise = True <$ putItem t k i it {total = total it + n, free = free it + n, price = p}
    takeUnits k i it
      | k == flight = if used it > 0 then pure False else True <$ dropItem t k i
      | free it < n = pure False
      | total it == n = True <$ dropItem t k i
      | otherwise = True <$ putItem t k i it {total = total it - n, free = free it - n}

-- What a run leaves: the items by kind, the customers, and whether each stands in its own bucket alone.
data Last = Last [IM.IntMap Item] (IM.IntMap (Int, [(Int, Int)])) Bool

lastOf :: Tables -> IO Last
lastOf t = do
  its <- mapM readTVarIO (elems (items t))
  cs <- mapM readTVarIO (elems (customers t))
  let kinds = [IM.unions (take buckets (drop (k * buckets) its)) | k <- [0 .. 2]]
      list End = []
      list (B i w r) = (i, w) : list r
      people = IM.map (\(Customer n l) -> (n, reverse (list l))) (IM.unions cs)
  pure (Last kinds people (sum (map IM.size its) == sum (map IM.size kinds)))

-- Whether each item's used units are those that customers hold, and each number is within its limits.
balanced :: Last -> Bool
balanced (Last kinds people whole) =
  whole
    && and [IM.member i (kinds !! k) | (k, i) <- M.keys held]
    && and [right k i it | (k, m) <- zip [0 ..] kinds, (i, it) <- IM.toList m]
    && all fair people
  where
    key (i, w) = (w .&. 3, i)
    held = M.fromListWith (+) [(key b, 1 :: Int) | (_, l) <- IM.elems people, b <- l]
    fair (n, l) = n == length l && n <= bookingsLimit && S.size (S.fromList (map key l)) == n
    right k i it =
      used it + free it == total it
        && used it == M.findWithDefault 0 (k, i) held
        && total it >= 1
        && total it <= numberLimit

digest :: Last -> Int
digest (Last kinds people _) = foldl' mix (foldl' mix empty ofItems) ofPeople
  where
    ofItems = [x | m <- kinds, (i, it) <- IM.toList m, x <- [i, total it, used it, free it, price it]]
    ofPeople = [x | (c, (_, l)) <- IM.toList people, x <- c : concat [[w .&. 3, i, w `shiftR` 2] | (i, w) <- l]]

-- Of a session, for --audit: its place in the serial order, its thread, its place in the thread's list, and its reply.
type Logged = (Int, (Int, Int, Int))

-- Runs the sessions of one thread; the sum of its replies, and its log. The place is counted inside the transaction.
work :: Options -> Tables -> TVar Int -> Ptr Int -> Sessions -> Int -> IO (Int, [Logged])
work o t place p s@(Sessions n _ _) w = do
  logs <- newIORef []
  let q = o "queries"
      plain !i !acc
        | i == n = pure acc
        | otherwise = do
            r <- atomically (started p >> act t q s i)
            plain (i + 1) (acc + r)
      logged !i !acc
        | i == n = pure acc
        | otherwise = do
            (r, at) <- atomically $ do
              started p
              r <- act t q s i
              at <- (+ 1) <$> readTVar place
              writeTVar place $! at
              pure (r, at)
            modifyIORef' logs ((at, (w, i, r)) :)
            logged (i + 1) (acc + r)
  acc <- if o "audit" == 1 then logged 0 0 else plain 0 0
  l <- readIORef logs
  acc `seq` pure (acc, l)

-- Whether the sessions one after another in their serial order have these replies and leave these tables.
audited :: Options -> Int -> [Sessions] -> [Logged] -> Int -> IO Bool
audited o seed lists logs expected = do
  t <- opening o seed
  let order = sort logs
  same <- forM order $ \(_, (w, i, r)) -> (== r) <$> atomically (act t (o "queries") (lists !! w) i)
  l <- lastOf t
  pure (map fst order == [1 .. o "transactions"] && and same && digest l == expected)

data Run = Run {took :: !Took, replies, tries, left :: !Int, fine, sound :: !Bool}

run :: Options -> Int -> IO Run
run o seed = do
  let clients = o "clients"
  t <- opening o seed
  place <- newTVarIO (0 :: Int)
  lists <- forM [0 .. clients - 1] $ \w ->
    evaluate (drawSessions o seed (w + 1) (shareOf (o "transactions") clients w))
  c <- counters clients
  performGC
  (time, done) <- inThreads clients $ \w -> work o t place (counter c w) (lists !! w) w
  n <- begun c clients
  l <- lastOf t
  let d = digest l
  ok <- if o "audit" == 1 then audited o seed lists (concatMap snd done) d else pure True
  evaluate (Run time (sum (map fst done)) n d (balanced l) ok)

report :: Options -> [Run] -> IO ()
report o runs = do
  let n = o "transactions" * o "repeat"
      seconds = sum (map (wall . took) runs)
      late = sum (map (delay . took) runs)
      (isFine, isSound) = (all fine runs, all sound runs)
  printf
    "peer=ghc-stm clients=%d sessions=%d wall=%.6f rate=%.0f waited=%.2f aborts=%d balanced=%s audit=%s replies=%016x digest=%016x\n"
    (o "clients")
    n
    seconds
    (fromIntegral n / seconds)
    (late / (seconds * fromIntegral (o "clients")))
    (sum (map tries runs) - n)
    (if isFine then "yes" else "NO")
    (if o "audit" == 0 then "none" else if isSound then "ok" else "FAULT")
    (fromIntegral (sum (map replies runs)) :: Word64)
    (fromIntegral (foldl' mix 0 (map left runs)) :: Word64)
  unless (isFine && isSound) $ exitWith (ExitFailure 3)

main :: IO ()
main = do
  o <-
    options
      [ ("clients", 2), ("transactions", 1000), ("relations", 100), ("queries", 10)
      , ("percent-queried", 60), ("percent-user", 90), ("seed", 1), ("repeat", 1), ("audit", 0)
      ]
  let within name least most = o name >= least && o name <= most
      ok =
        within "clients" 1 64 && within "queries" 1 100 && within "percent-queried" 1 100
          && within "relations" 1 1000000 && within "transactions" 1 100000000
          && within "percent-user" 0 100 && o "repeat" >= 1
  unless ok $ refuse "an option is outside its range"
  setNumCapabilities (o "clients")
  runs <- forM [0 .. o "repeat" - 1] $ \k -> run o (o "seed" + k)
  report o runs
